<?xml version="1.0" encoding="UTF-8"?>
<xsl:stylesheet version="1.0" xmlns:xsl="http://www.w3.org/1999/XSL/Transform"
    xmlns:xccdf-1.2="http://checklists.nist.gov/xccdf/1.2" xmlns:html="http://www.w3.org/1999/xhtml">
  <xsl:import href="../lines.xsl"/>

  <xsl:template match="/" mode="witnesses">
    <xsl:for-each select="//xccdf-1.2:Group/xccdf-1.2:title">
      <xsl:variable name="title" select="."/>
      <xsl:for-each select="../xccdf-1.2:description[text() and html:code]">
        <witness>
          <xccdf-1.2:Group>
            <xsl:copy-of select="$title"/>
            <xccdf-1.2:description>
              <xsl:copy-of select="text()"/>
              <xsl:copy-of select="html:code"/>
            </xccdf-1.2:description>
          </xccdf-1.2:Group>
        </witness>
      </xsl:for-each>
    </xsl:for-each>
  </xsl:template>
</xsl:stylesheet>
