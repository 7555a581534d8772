<?xml version="1.0" encoding="UTF-8"?>
<xsl:stylesheet version="1.0" xmlns:xsl="http://www.w3.org/1999/XSL/Transform">
  <xsl:import href="../lines.xsl"/>

  <xsl:template match="/" mode="witnesses">
    <witness>
      <iso_3166_entries>
        <xsl:for-each select="/iso_3166_entries/iso_3166_3_entry[@date_withdrawn &gt;= 1979 and @date_withdrawn &lt; 1985]">
          <iso_3166_3_entry>
            <xsl:apply-templates select="@date_withdrawn" mode="shown"/>
            <xsl:apply-templates select="@names" mode="shown"/>
            <xsl:apply-templates select="@comment" mode="shown"/>
          </iso_3166_3_entry>
        </xsl:for-each>
      </iso_3166_entries>
    </witness>
  </xsl:template>
</xsl:stylesheet>
